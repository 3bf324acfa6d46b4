--  A loop that allocates a record of two numbers and frees it again.
with Ada.Text_IO; use Ada.Text_IO;
with Ada.Unchecked_Deallocation;
procedure Freed is
   type Pair is record
      First  : Integer;
      Second : Integer;
   end record;
   type Link is access Pair;
   procedure Free is new Ada.Unchecked_Deallocation (Pair, Link);
   X : Link;
begin
   for I in 1 .. TURNS loop
      X := new Pair;
      Free (X);
   end loop;
   Put_Line (Boolean'Image (X = null));
end Freed;
