--  A loop around a block with one variable.
with Ada.Text_IO; use Ada.Text_IO;
procedure Scalar_Block is
   Total : Integer := 0;
begin
   for I in 1 .. TURNS loop
      declare
         X : Integer := I;
      begin
         Total := X;
      end;
   end loop;
   Put_Line (Integer'Image (Total));
end Scalar_Block;
