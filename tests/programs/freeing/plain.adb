--  An allocated object without a controlled part takes a value, and one is freed (RM 4.8, 13.11.2).
with Ada.Text_IO; use Ada.Text_IO;
with Ada.Unchecked_Deallocation;

procedure Plain is
   type R is record
      N : Integer := 3;
   end record;

   type P is access R;

   procedure Free is new Ada.Unchecked_Deallocation (R, P);

   A, B : P;
begin
   A := new R;
   A.N := 5;
   B := new R'(A.all);
   Free (A);
   Put_Line (Integer'Image (B.N) & Boolean'Image (A = null));
end Plain;
