--  An access value is converted to another access type, and dereferenced (RM 4.1, 4.6).
with Ada.Text_IO; use Ada.Text_IO;

procedure Converted is
   type R is record
      N : Integer := 3;
   end record;

   type P is access R;
   type G is access all R;

   A : P;
begin
   A := new R;
   G (A).N := 4;
   Put_Line (Integer'Image (G (A).N + A.N));
end Converted;
