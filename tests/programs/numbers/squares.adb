--  A variable is both operands of an operator, and a literal the right one of another (RM 4.5.5).
with Ada.Text_IO; use Ada.Text_IO;

procedure Squares is
begin
   for I in 1 .. 3 loop
      Put (Integer'Image (I * I mod 7));
   end loop;
   New_Line;
end Squares;
