--  The record that a function gives is the first value of an object, is assigned, and is what another function returns
--  (RM 3.3.1, 5.2, 6.5).
with Ada.Text_IO; use Ada.Text_IO;

procedure Initial is
   type R is record
      A : Integer;
      B : Integer;
   end record;

   function Pair (N : Integer) return R is
      V : R;
   begin
      V.A := N;
      V.B := N + 1;
      return V;
   end Pair;

   function Twice (N : Integer) return R is
   begin
      return Pair (2 * N);
   end Twice;

   X : R := Pair (4);
   Y : R;
begin
   Put_Line (Integer'Image (X.A) & Integer'Image (X.B));
   Y := Pair (X.B);
   X := Twice (Y.B);
   Put_Line (Integer'Image (X.A) & Integer'Image (X.B) & Integer'Image (Y.A) & Integer'Image (Y.B));
   X := Pair (X.B);
   Put_Line (Integer'Image (X.A) & Integer'Image (X.B));
end Initial;
