--  The Adjust of a part of the target raises: the others are made all the same, and then Program_Error is raised
--  (RM 7.6.1).
with Ada.Finalization; use Ada.Finalization;

procedure Failing_Adjust is
   Calls : Integer := 0;

   type T is new Controlled with null record;

   overriding procedure Adjust (X : in out T);

   type R is record
      A, B : T;
   end record;

   procedure Adjust (X : in out T) is
   begin
      Calls := Calls + 1;
      if Calls = 1 then
         raise Constraint_Error;
      end if;
   end Adjust;

   V, W : R;
begin
   W := V;
exception
   when Program_Error =>
      null;
end Failing_Adjust;
