--  A function that gives a record calls itself with the records that it gives (RM 6.4, 6.5).
with Ada.Text_IO; use Ada.Text_IO;

procedure Recursive is
   type R is record
      A   : Integer;
      Sum : Integer;
   end record;

   function Pair (A : Integer; Sum : Integer) return R is
      V : R;
   begin
      V.A := A;
      V.Sum := Sum;
      return V;
   end Pair;

   function Summed (X : R) return R is
   begin
      if X.A = 0 then
         return X;
      end if;
      return Summed (Pair (X.A - 1, X.Sum + X.A));
   end Summed;

   function Both (X : R; Y : R) return R is
   begin
      if X.A = 0 then
         return Y;
      end if;
      return Both (Pair (X.A - 1, 0), Both (Pair (X.A - 1, 0), Pair (Y.A, Y.Sum + 1)));
   end Both;
begin
   Put_Line (Integer'Image (Summed (Pair (4, 0)).Sum));
   Put_Line (Integer'Image (Both (Pair (3, 0), Pair (9, 0)).Sum) & Integer'Image (Both (Pair (0, 0), Pair (9, 0)).A));
end Recursive;
