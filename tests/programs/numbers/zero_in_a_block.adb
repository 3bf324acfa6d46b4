--  A division by zero in a block raises Constraint_Error, and the object of the block is finalized (RM 4.5.5, 7.6.1).
with Ada.Finalization; use Ada.Finalization;
with Ada.Text_IO;      use Ada.Text_IO;

procedure Zero_In_A_Block is
   type A is new Controlled with null record;

   overriding procedure Finalize (X : in out A);

   procedure Finalize (X : in out A) is
   begin
      Put_Line ("a");
   end Finalize;

   N : Integer := Integer'Last;
begin
   declare
      V : A;
   begin
      N := N / 0;
      Put_Line ("no");
   end;
end Zero_In_A_Block;
