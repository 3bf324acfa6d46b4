--  Two blocks one behind the other, each with an object of a type of its own: what the first one declares is gone with it,
--  before the second one begins (RM 7.6.1).
with Ada.Finalization; use Ada.Finalization;
with Ada.Text_IO;      use Ada.Text_IO;

procedure Two_Blocks is
   type A is new Controlled with null record;
   type B is new Controlled with null record;

   overriding procedure Finalize (X : in out A);
   overriding procedure Finalize (X : in out B);

   procedure Finalize (X : in out A) is
   begin
      Put_Line ("bye");
   end Finalize;

   procedure Finalize (X : in out B) is
   begin
      New_Line;
   end Finalize;
begin
   declare
      V : B;
   begin
      null;
   end;
   declare
      V : A;
   begin
      null;
   end;
end Two_Blocks;
