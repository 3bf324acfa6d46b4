--  The parts of a copy are adjusted in a chosen order, and come to life by that (RM 7.6).
with Ada.Finalization; use Ada.Finalization;

procedure Copied is
   type T is new Controlled with null record;

   overriding procedure Adjust (X : in out T);
   overriding procedure Finalize (X : in out T);

   type R is record
      A, B : T;
   end record;

   procedure Adjust (X : in out T) is
   begin
      null;
   end Adjust;

   procedure Finalize (X : in out T) is
   begin
      null;
   end Finalize;

   V : R;
begin
   declare
      W : R := V;
   begin
      null;
   end;
end Copied;
