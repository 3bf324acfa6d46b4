--  The value of a function is an operand: of one that returns its formal, and of one that returns a literal (RM 4.5, 6.5).
with Ada.Text_IO; use Ada.Text_IO;

procedure Operands is
   function Same (N : Integer) return Integer is
   begin
      return N;
   end Same;

   function Forty_One return Integer is
   begin
      return 41;
   end Forty_One;
begin
   Put (Integer'Image (1 + Same (20)));
   Put (Integer'Image (1 + Forty_One));
end Operands;
