--  A transaction is rolled back where its procedure is left before it was committed. A handler runs before the objects of its own
--  construct are finalized (RM 11.4, 7.6.1): it still sees the transaction. One that is not for the exception leaves it to the next.
with Ada.Finalization; use Ada.Finalization;
with Ada.Text_IO;      use Ada.Text_IO;

procedure Rolled_Back is
   type Transaction is new Limited_Controlled with record
      Number    : Integer := 0;
      Committed : Boolean := False;
   end record;

   overriding procedure Finalize (X : in out Transaction);

   Refused, Lost : exception;
   Begun         : Integer := 0;

   procedure Finalize (X : in out Transaction) is
   begin
      if X.Committed then
         Put_Line ("kept" & Integer'Image (X.Number));
      else
         Put_Line ("rolled back" & Integer'Image (X.Number));
      end if;
   end Finalize;

   procedure Transfer is
      T : Transaction;
   begin
      Begun := Begun + 1;
      T.Number := Begun;
      if Begun = 2 then
         raise Refused;
      elsif Begun = 3 then
         raise Lost;
      end if;
      T.Committed := True;
   exception
      when Refused =>
         Put_Line ("refused" & Integer'Image (T.Number));
   end Transfer;
begin
   for I in 1 .. 4 loop
      begin
         Transfer;
      exception
         when Constraint_Error | Lost =>
            Put_Line ("connection lost");
            raise;
      end;
   end loop;
exception
   when others =>
      Put_Line ("stopped after" & Integer'Image (Begun));
end Rolled_Back;
