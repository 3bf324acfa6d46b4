--  Variables and components of Storage_Count and Address: beginnings, comparisons, copies, results, formals whose
--  copies go back, and ranges (RM 13.7, 13.7.1).
with Ada.Text_IO;             use Ada.Text_IO;
with System;                  use System;
with System.Storage_Elements; use System.Storage_Elements;
with Block_Pools;             use Block_Pools;

procedure Scalars is
   M, N : Storage_Count := 8;
   A, B : System.Address;

   type R is record
      S     : Storage_Count := 24;
      Place : System.Address;
   end record;

   V : R;

   procedure Double (X : in Storage_Count; Y : out Storage_Count; Z : in out System.Address) is
   begin
      Y := X * 2;
      if Z = System.Null_Address then
         Z := A;
      end if;
   end Double;

   function Least (X, Y : Storage_Count) return Storage_Count is
   begin
      if X < Y then
         return X;
      end if;
      return Y;
   end Least;

   P : Block_Pool (8, 1);
begin
   Put_Line (Boolean'Image (M = N) & Boolean'Image (V.Place = A));
   Allocate (P, A, Least (M, 9), N);
   Double (N, M, B);
   Put_Line (Boolean'Image (M = 16) & Boolean'Image (M > V.S) & Boolean'Image (B = A));
   V.Place := B;
   V.S := V.S mod 7 + Least (M, N);
   Put_Line (Boolean'Image (V.S = 11) & Boolean'Image (V.Place /= A));
   begin
      M := N - 9;
   exception
      when Constraint_Error =>
         Put_Line ("low" & Boolean'Image (M = 16));
   end;
   begin
      M := 2147483647;
      M := M + 1;
   exception
      when Constraint_Error =>
         Put_Line ("high");
   end;
   begin
      Deallocate (P, V.Place, N - 8, 8);
      Allocate (P, A, N - 9, 8);
   exception
      when Constraint_Error =>
         Put_Line ("size");
   end;
end Scalars;
