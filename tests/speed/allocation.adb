--  A loop that allocates a record of two numbers, each of which stays to the end.
with Ada.Text_IO; use Ada.Text_IO;
procedure Allocation is
   type Pair is record
      First  : Integer;
      Second : Integer;
   end record;
   type Link is access Pair;
   X : Link;
begin
   for I in 1 .. TURNS loop
      X := new Pair;
      X.First := I;
   end loop;
   Put_Line (Integer'Image (X.First));
end Allocation;
