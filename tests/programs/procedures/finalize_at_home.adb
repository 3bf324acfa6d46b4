--  A Finalize has a block of its own, with an object of another type, and counts up a variable of the main procedure: its
--  body stands where it is declared, whatever calls it (RM 7.6.1, 8.3).
with Ada.Finalization; use Ada.Finalization;
with Ada.Text_IO;      use Ada.Text_IO;

procedure Finalize_At_Home is
   Count : Integer := 5;

   type A is new Controlled with null record;
   type B is new Controlled with null record;

   overriding procedure Finalize (X : in out A);
   overriding procedure Finalize (X : in out B);

   procedure Finalize (X : in out A) is
   begin
      declare
         Inner : B;
      begin
         null;
      end;
      Count := Count + 1;
      Put_Line (Integer'Image (Count));
   end Finalize;

   procedure Finalize (X : in out B) is
   begin
      New_Line;
   end Finalize;
begin
   declare
      V : A;
   begin
      null;
   end;
end Finalize_At_Home;
