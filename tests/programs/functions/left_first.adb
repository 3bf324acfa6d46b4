--  Operands are evaluated from left to right, where the manual leaves the order open: a variable on the left is read
--  before the function that changes it is called, and one on the right after it (RM 4.5).
with Ada.Text_IO; use Ada.Text_IO;

procedure Left_First is
   N : Integer := 1;

   function Next return Integer is
   begin
      N := N + 1;
      return N;
   end Next;
begin
   N := N + Next * 10;
   Put_Line (Integer'Image (N));
   N := Next + N;
   Put_Line (Integer'Image (N));
end Left_First;
