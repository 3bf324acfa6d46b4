--  A loop that sums into a component of an object that an access value designates.
with Ada.Text_IO; use Ada.Text_IO;
procedure Designated_Sum is
   type Total is record
      Sum : Integer;
   end record;
   type Link is access Total;
   X : Link := new Total;
begin
   for I in 1 .. TURNS loop
      X.Sum := (X.Sum + I) mod 1000003;
   end loop;
   Put_Line (Integer'Image (X.Sum));
end Designated_Sum;
