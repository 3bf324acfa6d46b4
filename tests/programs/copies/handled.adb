--  An exception that the body handles is a normal return: what the handler leaves in a formal goes back (RM 6.4.1,
--  11.4).
with Ada.Text_IO; use Ada.Text_IO;

procedure Handled is
   N : Integer := 1;

   procedure P (M : in out Integer) is
   begin
      M := 2;
      raise Constraint_Error;
   exception
      when Constraint_Error =>
         M := M + 5;
   end P;
begin
   P (N);
   Put_Line (Integer'Image (N));
end Handled;
