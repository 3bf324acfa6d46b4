--  The Adjust of one of three parts of a copy raises: the others are adjusted all the same, and then the parts that
--  are adjusted are finalized, in a chosen order (RM 7.6.1).
with Ada.Finalization; use Ada.Finalization;

procedure Failed_Copy is
   Calls : Integer := 0;

   type T is new Controlled with null record;

   overriding procedure Adjust (X : in out T);
   overriding procedure Finalize (X : in out T);

   type R is record
      A, B, C : T;
   end record;

   procedure Adjust (X : in out T) is
   begin
      Calls := Calls + 1;
      if Calls = 2 then
         raise Constraint_Error;
      end if;
   end Adjust;

   procedure Finalize (X : in out T) is
   begin
      null;
   end Finalize;

   V : R;
begin
   declare
      W : R := V;
   begin
      null;
   end;
exception
   when Program_Error =>
      null;
end Failed_Copy;
