--  The call that a name begins with comes before the value that is assigned: the manual leaves the order open
--  (RM 5.2).
with Ada.Text_IO; use Ada.Text_IO;

procedure Called_First is
   type R is record
      N : Integer := 3;
   end record;

   type P is access R;

   A : P;

   function Found (K : Integer) return P is
   begin
      Put_Line ("name");
      return A;
   end Found;

   function Given (N : Integer) return Integer is
   begin
      Put_Line ("value");
      return N;
   end Given;
begin
   A := new R;
   Found (1).N := Given (7);
   Put_Line (Integer'Image (A.N));
end Called_First;
