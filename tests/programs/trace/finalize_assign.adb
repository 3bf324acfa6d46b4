--  The target of an assignment is finalized before it takes the value (RM 7.6).
with Ada.Finalization; use Ada.Finalization;

procedure Finalize_Assign is
   type T is new Controlled with null record;

   overriding procedure Finalize (X : in out T);

   procedure Finalize (X : in out T) is
   begin
      null;
   end Finalize;

   X, Y : T;
begin
   X := Y;
end Finalize_Assign;
