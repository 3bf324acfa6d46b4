--  Each component that takes its default is chosen among those that are left: a choice among three, one among two,
--  and none (RM 7.6). A component without a default takes no part in it.
with Ada.Finalization; use Ada.Finalization;

procedure Defaults is
   type A is new Controlled with record
      N : Integer := 4;
      B : Boolean;
      C : Boolean := True;
      M : Integer := 7;
   end record;

   overriding procedure Finalize (X : in out A);

   procedure Finalize (X : in out A) is
   begin
      null;
   end Finalize;
begin
   declare
      V : A;
   begin
      null;
   end;
end Defaults;
