--  A return statement leaves a loop and a block of its body, whose object is finalized (RM 6.5, 7.6.1).
with Ada.Finalization; use Ada.Finalization;
with Ada.Text_IO;      use Ada.Text_IO;

procedure Returned is
   type A is new Controlled with null record;
   type B is new Controlled with null record;

   overriding procedure Finalize (X : in out A);
   overriding procedure Finalize (X : in out B);

   procedure Finalize (X : in out A) is
   begin
      for I in 1 .. 3 loop
         declare
            V : B;
         begin
            Put_Line ("a");
            return;
         end;
      end loop;
      Put_Line ("no");
   end Finalize;

   procedure Finalize (X : in out B) is
   begin
      Put_Line ("b");
   end Finalize;
begin
   declare
      V : A;
   begin
      null;
   end;
   Put_Line ("out");
   return;
end Returned;
