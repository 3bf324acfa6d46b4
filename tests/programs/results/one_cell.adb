--  Records of one component, from functions that are left inside of blocks and loops (RM 5.7, 6.5).
with Ada.Text_IO; use Ada.Text_IO;

procedure One_Cell is
   type S is record
      N : Integer;
   end record;

   type T is record
      X : S;
   end record;

   function F (N : Integer) return S is
      V : S;
   begin
      for I in 1 .. 10 loop
         declare
            W : S;
         begin
            W.N := 10 * I;
            if I = N then
               return W;
            end if;
         end;
      end loop;
      V.N := N;
      return V;
   end F;

   function G (N : Integer) return T is
      V : T;
   begin
      V.X := F (N);
      return V;
   end G;

   function H (X : S) return S is
   begin
      return X;
   end H;

   procedure P (X : S; N : in out Integer) is
   begin
      N := N + X.N;
   end P;

   A : S := F (3);
   B : T := G (11);
   K : Integer := 1;
begin
   Put_Line (Integer'Image (A.N) & Integer'Image (B.X.N));
   P (F (2), K);
   Put_Line (Integer'Image (K));
   P (H (F (1)), A.N);
   P (G (4).X, B.X.N);
   Put_Line (Integer'Image (A.N) & Integer'Image (B.X.N));
   B.X := H (H (A));
   Put_Line (Integer'Image (B.X.N) & Integer'Image (F (12).N));
end One_Cell;
