--  A block declares two controlled objects. Leaving the block finalizes them, the last one first (RM 7.6.1 (9)):
--  run this with --trace to see each call that the rules of the language make.
with Ada.Finalization; use Ada.Finalization;
with Ada.Text_IO;      use Ada.Text_IO;

procedure Two_Objects is
   type File is new Limited_Controlled with null record;
   type Lock is new Limited_Controlled with null record;

   overriding procedure Initialize (X : in out File);
   overriding procedure Finalize (X : in out File);
   overriding procedure Initialize (X : in out Lock);
   overriding procedure Finalize (X : in out Lock);

   procedure Initialize (X : in out File) is
   begin
      Put_Line ("open the file");
   end Initialize;

   procedure Finalize (X : in out File) is
   begin
      Put_Line ("close the file");
   end Finalize;

   procedure Initialize (X : in out Lock) is
   begin
      Put_Line ("take the lock");
   end Initialize;

   procedure Finalize (X : in out Lock) is
   begin
      Put_Line ("give the lock back");
   end Finalize;
begin
   declare
      Data  : File;
      Guard : Lock;
   begin
      Put_Line ("work");
   end;
   Put_Line ("done");
end Two_Objects;
