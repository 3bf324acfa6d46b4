--  Of three controlled parts the last one's Initialize raises: the parts that are complete are finalized, in a chosen
--  order, and the object never was (RM 7.6.1).
with Ada.Finalization; use Ada.Finalization;

procedure Failing_Part is
   type T is new Controlled with null record;

   overriding procedure Finalize (X : in out T);

   type Bad is new T with null record;

   overriding procedure Initialize (X : in out Bad);

   type R is new Limited_Controlled with record
      A, B : T;
      C    : Bad;
   end record;

   overriding procedure Finalize (X : in out R);

   procedure Finalize (X : in out T) is
   begin
      null;
   end Finalize;

   procedure Initialize (X : in out Bad) is
   begin
      raise Constraint_Error;
   end Initialize;

   procedure Finalize (X : in out R) is
   begin
      null;
   end Finalize;
begin
   declare
      V : R;
   begin
      null;
   end;
exception
   when Constraint_Error =>
      null;
end Failing_Part;
