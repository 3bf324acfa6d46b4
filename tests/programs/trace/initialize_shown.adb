--  An Initialize that the user wrote is called where an object is created without a value (RM 7.6).
with Ada.Finalization; use Ada.Finalization;

procedure Initialize_Shown is
   type T is new Controlled with null record;

   overriding procedure Initialize (X : in out T);

   procedure Initialize (X : in out T) is
   begin
      null;
   end Initialize;

   X : T;
begin
   null;
end Initialize_Shown;
