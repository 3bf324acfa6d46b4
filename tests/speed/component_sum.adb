--  A loop that sums into a component of an object.
with Ada.Finalization; use Ada.Finalization;
with Ada.Text_IO; use Ada.Text_IO;
procedure Component_Sum is
   type Total is new Controlled with record
      Sum : Integer;
   end record;
   X : Total;
begin
   for I in 1 .. TURNS loop
      X.Sum := (X.Sum + I) mod 1000003;
   end loop;
   Put_Line (Integer'Image (X.Sum));
end Component_Sum;
