--  Null designates no object: a dereference raises Constraint_Error (RM 4.1).
with Ada.Text_IO; use Ada.Text_IO;

procedure Null_Designates_Nothing is
   type R is record
      N : Integer := 3;
   end record;

   type P is access R;

   V : P;
begin
   V.N := 1;
exception
   when Constraint_Error =>
      Put_Line ("null");
end Null_Designates_Nothing;
