--  An exception leaves the call that a name begins with, and nothing is assigned (RM 4.1, 11.4).
with Ada.Text_IO; use Ada.Text_IO;

procedure Raised is
   type R is record
      N : Integer := 3;
   end record;

   type P is access R;

   A    : P;
   Lost : exception;

   function Find (K : Integer) return P is
   begin
      if K = 0 then
         raise Lost;
      end if;
      return A;
   end Find;
begin
   A := new R;
   Find (0).N := 1;
exception
   when Lost =>
      Put_Line (Integer'Image (Find (1).N));
end Raised;
