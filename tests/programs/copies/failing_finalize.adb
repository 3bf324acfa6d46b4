--  A body ends normally, but the Finalize of its object raises: Program_Error is the exception of the call, and no
--  copy goes back (RM 6.4.1, 7.6.1).
with Ada.Finalization; use Ada.Finalization;
with Ada.Text_IO;      use Ada.Text_IO;

procedure Failing_Finalize is
   N : Integer := 1;

   type T is new Limited_Controlled with null record;

   overriding procedure Finalize (X : in out T);

   procedure Finalize (X : in out T) is
   begin
      raise Constraint_Error;
   end Finalize;

   procedure P (M : in out Integer) is
      V : T;
   begin
      M := 2;
   end P;
begin
   begin
      P (N);
   exception
      when Program_Error =>
         Put_Line ("lost");
   end;
   Put_Line (Integer'Image (N));
end Failing_Finalize;
