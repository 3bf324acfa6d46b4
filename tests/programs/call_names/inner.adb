--  A component of a record type, of the object that a call designates, is assigned to as a whole. Which of the two
--  begins first is chosen (RM 5.2, 7.6).
with Ada.Text_IO; use Ada.Text_IO;

procedure Inner is
   type R is record
      N : Integer := 3;
   end record;

   type S is record
      Left, Right : R;
   end record;

   type P is access S;

   A : P;
   X : R;

   function Find (K : Integer) return P is
   begin
      return A;
   end Find;
begin
   A := new S;
   X.N := 8;
   Find (1).Left := X;
   Find (1).Right := Find (1).Left;
   Put_Line (Integer'Image (A.Left.N) & Integer'Image (Find (1).Right.N));
end Inner;
