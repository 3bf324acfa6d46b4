--  Finalizations that fail at the end of a block are Program_Error in place of the exit statement, and that is
--  handled (RM 7.6.1, 11.4).
with Ada.Finalization; use Ada.Finalization;
with Ada.Text_IO;      use Ada.Text_IO;

procedure Failure_Handled is
   type A is new Controlled with null record;

   overriding procedure Finalize (X : in out A);

   procedure Finalize (X : in out A) is
   begin
      Put_Line ("f");
      raise Constraint_Error;
   end Finalize;
begin
   loop
      begin
         declare
            V, W : A;
         begin
            exit;
         end;
      exception
         when Constraint_Error =>
            Put_Line ("no");
         when Program_Error =>
            Put_Line ("program error");
            exit;
      end;
   end loop;
   Put_Line ("out");
end Failure_Handled;
