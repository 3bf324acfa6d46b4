--  The parts of the target of an assignment are finalized, and then adjusted, each in a chosen order (RM 5.2, 7.6).
with Ada.Finalization; use Ada.Finalization;

procedure Assigned is
   type T is new Controlled with null record;

   overriding procedure Adjust (X : in out T);
   overriding procedure Finalize (X : in out T);

   type R is record
      A, B : T;
   end record;

   procedure Adjust (X : in out T) is
   begin
      null;
   end Adjust;

   procedure Finalize (X : in out T) is
   begin
      null;
   end Finalize;

   V : R;
begin
   declare
      W : R;
   begin
      W := V;
   end;
end Assigned;
