--  Copies go back from left to right. The manual leaves the order open, and makes this call illegal, which is not
--  judged (RM 6.4.1; docs/legality.md).
with Ada.Text_IO; use Ada.Text_IO;

procedure Left_To_Right is
   N : Integer := 5;

   procedure P (A : out Integer; B : out Integer) is
   begin
      A := 1;
      B := 2;
   end P;
begin
   P (N, N);
   Put_Line (Integer'Image (N));
end Left_To_Right;
