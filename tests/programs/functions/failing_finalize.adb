--  A Finalize that raises takes the place of the result: Program_Error (RM 7.6.1).
with Ada.Finalization; use Ada.Finalization;

procedure Failing_Finalize is
   type T is new Limited_Controlled with null record;

   overriding procedure Finalize (X : in out T);

   procedure Finalize (X : in out T) is
   begin
      raise Constraint_Error;
   end Finalize;

   N : Integer;

   function F return Integer is
      V : T;
   begin
      return 1;
   end F;
begin
   N := F;
end Failing_Finalize;
