--  An exit statement leaves two blocks, whose objects are of two types: the inner object goes first (RM 5.7, 7.6.1).
with Ada.Finalization; use Ada.Finalization;
with Ada.Text_IO;      use Ada.Text_IO;

procedure Exit_Of_Two is
   type A is new Controlled with null record;
   type B is new Controlled with null record;

   overriding procedure Finalize (X : in out A);
   overriding procedure Initialize (X : in out B);
   overriding procedure Finalize (X : in out B);

   procedure Finalize (X : in out A) is
   begin
      Put_Line ("a");
   end Finalize;

   procedure Initialize (X : in out B) is
   begin
      Put_Line ("i");
   end Initialize;

   procedure Finalize (X : in out B) is
   begin
      Put_Line ("b");
   end Finalize;
begin
   loop
      declare
         V : A;
      begin
         declare
            W : B;
         begin
            exit;
         end;
      end;
   end loop;
   Put_Line ("out");
end Exit_Of_Two;
