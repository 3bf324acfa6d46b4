--  The Initialize of an object raises: its component, which is complete, is finalized, and the object is not (RM 7.6.1).
with Ada.Finalization; use Ada.Finalization;

procedure Finalize_Failed is
   type T is new Limited_Controlled with null record;

   overriding procedure Finalize (X : in out T);

   type U is new Limited_Controlled with record
      Part : T;
   end record;

   overriding procedure Initialize (X : in out U);

   procedure Finalize (X : in out T) is
   begin
      null;
   end Finalize;

   procedure Initialize (X : in out U) is
   begin
      raise Constraint_Error;
   end Initialize;

   X : U;
begin
   null;
end Finalize_Failed;
