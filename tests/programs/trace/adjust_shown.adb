--  An Adjust that the user wrote is called where an object takes a value (RM 7.6): a new one, and the target of an assignment.
with Ada.Finalization; use Ada.Finalization;

procedure Adjust_Shown is
   type T is new Controlled with null record;

   overriding procedure Adjust (X : in out T);

   procedure Adjust (X : in out T) is
   begin
      null;
   end Adjust;

   X : T;
   Y : T := X;
begin
   X := Y;
end Adjust_Shown;
