--  The target of an assignment is found before its value is evaluated: where null designates nothing, the value is not asked for (RM 4.1, 5.2).
with Ada.Text_IO; use Ada.Text_IO;

procedure Null_First is
   type Ref is access Integer;

   X : Ref;
   N : Integer := 0;

   function Told (K : Integer) return Integer is
   begin
      Put_Line ("told");
      return K;
   end Told;
begin
   begin
      X.all := Told (1);
   exception
      when Constraint_Error =>
         Put_Line ("not assigned");
   end;
   begin
      N := X.all;
   exception
      when Constraint_Error =>
         Put_Line ("not read" & Integer'Image (N));
   end;
end Null_First;
