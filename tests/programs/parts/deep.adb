--  A controlled part of a part, in an object that is not controlled itself, nor is the part between (RM 7.6, 7.6.1).
with Ada.Finalization; use Ada.Finalization;

procedure Deep is
   type T is new Controlled with record
      N : Integer := 7;
   end record;

   overriding procedure Initialize (X : in out T);
   overriding procedure Finalize (X : in out T);

   type Inner is record
      A : T;
   end record;

   type Outer is record
      B : Inner;
   end record;

   procedure Initialize (X : in out T) is
   begin
      null;
   end Initialize;

   procedure Finalize (X : in out T) is
   begin
      null;
   end Finalize;
begin
   declare
      V : Outer;
   begin
      null;
   end;
end Deep;
