--  A call gives an object that was freed: its use stops the run (RM 13.11.2).
with Ada.Text_IO; use Ada.Text_IO;
with Ada.Unchecked_Deallocation;

procedure Gone is
   type R is record
      N : Integer := 3;
   end record;

   type P is access R;

   procedure Free is new Ada.Unchecked_Deallocation (R, P);

   A, B : P;

   function Find (K : Integer) return P is
   begin
      return B;
   end Find;
begin
   A := new R;
   B := A;
   Free (A);
   Put_Line (Integer'Image (Find (1).N));
end Gone;
