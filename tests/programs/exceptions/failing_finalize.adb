--  A Finalize that raises stops no other finalization of its master, and becomes Program_Error then; the statement
--  behind the block is not executed (RM 7.6.1, 11.3).
with Ada.Finalization; use Ada.Finalization;
with Ada.Text_IO;      use Ada.Text_IO;

procedure Failing_Finalize is
   type A is new Controlled with null record;

   overriding procedure Finalize (X : in out A);

   Lost : exception;

   procedure Finalize (X : in out A) is
   begin
      Put_Line ("a");
      raise Lost;
   end Finalize;
begin
   declare
      V : A;
      W : A;
   begin
      null;
   end;
   Put_Line ("no");
end Failing_Finalize;
