--  The object is freed by the evaluation of the value that is assigned to its component: the assignment stops the run
--  (RM 13.11.2).
with Ada.Text_IO; use Ada.Text_IO;
with Ada.Unchecked_Deallocation;

procedure Lost is
   type R is record
      N : Integer := 3;
   end record;

   type P is access R;

   procedure Free is new Ada.Unchecked_Deallocation (R, P);

   A : P;

   function Find (K : Integer) return P is
   begin
      return A;
   end Find;

   function Dropped (N : Integer) return Integer is
   begin
      Free (A);
      Put_Line ("freed");
      return N;
   end Dropped;
begin
   A := new R;
   Find (1).N := Dropped (2);
end Lost;
