--  A record is passed by reference to a function, too: it reads what the caller's variable has now (RM 6.2).
with Ada.Text_IO; use Ada.Text_IO;

procedure By_Reference is
   type R is record
      N : Integer := 3;
   end record;

   V : R;

   function Double (X : R) return Integer is
   begin
      V.N := 4;
      return X.N * 2;
   end Double;
begin
   Put_Line (Integer'Image (Double (V)));
end By_Reference;
