--  The two controlled parts of an object are created one chosen after the other, before the whole, and finalized so
--  behind it (RM 7.6, 7.6.1).
with Ada.Finalization; use Ada.Finalization;

procedure Created is
   type T is new Controlled with record
      N : Integer := 0;
   end record;

   overriding procedure Finalize (X : in out T);

   type R is new Limited_Controlled with record
      A, B : T;
   end record;

   overriding procedure Finalize (X : in out R);

   procedure Finalize (X : in out T) is
   begin
      null;
   end Finalize;

   procedure Finalize (X : in out R) is
   begin
      null;
   end Finalize;

   V : R;
begin
   null;
end Created;
