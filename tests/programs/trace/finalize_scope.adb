--  The objects of a master are finalized as it is left, the newest first (RM 7.6.1).
with Ada.Finalization; use Ada.Finalization;

procedure Finalize_Scope is
   type T is new Controlled with null record;

   overriding procedure Finalize (X : in out T);

   procedure Finalize (X : in out T) is
   begin
      null;
   end Finalize;

   X, Y : T;
begin
   null;
end Finalize_Scope;
