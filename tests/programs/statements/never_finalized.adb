--  A Finalize that declares an object of its own type never comes to its end: the limit ends the run, with --steps 3
--  behind the first event (RM 7.6.1).
with Ada.Finalization; use Ada.Finalization;
with Ada.Text_IO;      use Ada.Text_IO;

procedure Never_Finalized is
   type A is new Controlled with null record;

   overriding procedure Finalize (X : in out A);

   procedure Finalize (X : in out A) is
      V : A;
   begin
      Put ("x");
   end Finalize;

   V : A;
begin
   null;
end Never_Finalized;
