--  A component of what a function's value designates is read and assigned to (RM 4.1.3, 5.2).
with Ada.Text_IO; use Ada.Text_IO;

procedure Component is
   type R is record
      N : Integer := 3;
   end record;

   type P is access R;

   A, B : P;

   function Find (K : Integer) return P is
   begin
      if K = 1 then
         return A;
      end if;
      return B;
   end Find;
begin
   A := new R;
   B := new R;
   B.N := 5;
   Put_Line (Integer'Image (Find (1).N) & Integer'Image (Find (2).N));
   Find (1).N := Find (2).N + 1;
   Put_Line (Integer'Image (A.N));
end Component;
