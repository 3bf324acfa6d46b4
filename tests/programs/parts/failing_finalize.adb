--  The Finalize of a part of the target raises: Program_Error is raised at once, and the target keeps its value, so
--  nothing is adjusted (RM 7.6.1).
with Ada.Finalization; use Ada.Finalization;

procedure Failing_Finalize is
   Calls : Integer := 0;

   type T is new Controlled with null record;

   overriding procedure Adjust (X : in out T);
   overriding procedure Finalize (X : in out T);

   type R is record
      A, B : T;
   end record;

   procedure Adjust (X : in out T) is
   begin
      null;
   end Adjust;

   procedure Finalize (X : in out T) is
   begin
      Calls := Calls + 1;
      if Calls = 1 then
         raise Constraint_Error;
      end if;
   end Finalize;

   V : R;
begin
   declare
      W : R;
   begin
      W := V;
   exception
      when Program_Error =>
         null;
   end;
end Failing_Finalize;
