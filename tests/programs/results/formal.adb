--  A formal holds the record that a function gives, and stands for the variable that is named: what changes the variable
--  changes the one and not the other. Both are handed on, whole and in part (RM 6.2, 6.4.1).
with Ada.Text_IO; use Ada.Text_IO;

procedure Formal is
   type Inner is record
      N : Integer;
   end record;

   type R is record
      A  : Integer;
      In_It : Inner;
   end record;

   V : R;

   function F (N : Integer) return R is
      X : R;
   begin
      X.A := N;
      X.In_It.N := N + 1;
      return X;
   end F;

   procedure Change is
   begin
      V.A := 70;
      V.In_It.N := 80;
   end Change;

   procedure Tell (X : in R) is
   begin
      Put_Line (Integer'Image (X.A) & Integer'Image (X.In_It.N));
   end Tell;

   procedure Tell_Inner (X : in Inner) is
   begin
      Change;
      Put_Line (Integer'Image (X.N));
   end Tell_Inner;

   procedure P (X : in R) is
      Y : R := X;
   begin
      Tell (X);
      Tell_Inner (X.In_It);
      Tell (X);
      Tell (Y);
      V := X;
   end P;
begin
   P (F (1));
   Tell (V);
   V := F (3);
   P (V);
   Tell (V);
   Tell_Inner (F (5).In_It);
   Tell (F (V.A));
end Formal;
