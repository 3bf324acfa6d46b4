--  An exception leaves the actual as it was: no copy goes back (RM 6.4.1).
with Ada.Text_IO; use Ada.Text_IO;

procedure Kept_Back is
   N : Integer := 1;

   procedure P (M : in out Integer) is
   begin
      M := 7;
      raise Constraint_Error;
   end P;
begin
   begin
      P (N);
   exception
      when Constraint_Error =>
         Put_Line ("caught");
   end;
   Put_Line (Integer'Image (N));
end Kept_Back;
