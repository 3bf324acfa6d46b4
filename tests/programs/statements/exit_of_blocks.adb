--  An exit statement leaves a loop, and two blocks in it (RM 5.7, 7.6.1).
with Ada.Finalization; use Ada.Finalization;
with Ada.Text_IO;      use Ada.Text_IO;

procedure Exit_Of_Blocks is
   type A is new Controlled with null record;

   overriding procedure Finalize (X : in out A);

   procedure Finalize (X : in out A) is
   begin
      Put_Line ("a");
   end Finalize;
begin
   loop
      declare
         V : A;
      begin
         declare
            W : A;
         begin
            exit;
         end;
      end;
   end loop;
   Put_Line ("out");
end Exit_Of_Blocks;
