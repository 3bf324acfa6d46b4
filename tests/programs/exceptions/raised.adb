--  An exception of the text's own leaves a block, a loop and the main procedure (RM 11.3, 11.4).
with Ada.Finalization; use Ada.Finalization;
with Ada.Text_IO;      use Ada.Text_IO;

procedure Raised is
   type A is new Controlled with null record;

   overriding procedure Finalize (X : in out A);

   Lost : exception;

   procedure Finalize (X : in out A) is
   begin
      Put_Line ("a");
   end Finalize;

   V : A;
begin
   for I in 1 .. 3 loop
      declare
         W : A;
      begin
         if I = 2 then
            raise Lost;
         end if;
      end;
   end loop;
   Put_Line ("no");
end Raised;
