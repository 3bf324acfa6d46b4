--  Formals whose copies go back: the caller's variables change when the body has ended normally, behind the finalization of the body's
--  objects, and not at all where an exception leaves it (RM 6.4.1, 7.6.1).
with Ada.Finalization; use Ada.Finalization;
with Ada.Text_IO;      use Ada.Text_IO;

procedure Withdrawals is
   Refused : exception;

   Balance : Integer := 100;
   Count   : Integer := 0;

   --  Shows the account as others see it when a withdrawal ends
   type Audit is new Limited_Controlled with record
      Amount : Integer := 0;
   end record;

   overriding procedure Finalize (X : in out Audit);

   procedure Finalize (X : in out Audit) is
   begin
      Put_Line ("  audit" & Integer'Image (X.Amount) & " of" & Integer'Image (Balance));
   end Finalize;

   procedure Step (Counter : in out Integer) is
   begin
      Counter := Counter + 1;
   end Step;

   --  Takes what is there, and tells whether that was all that was asked for
   procedure Withdraw (From : in out Integer; Amount : Integer; Given : out Integer; All_Of_It : out Boolean) is
      Check : Audit;
   begin
      Check.Amount := Amount;
      Step (Count);
      if Amount <= 0 then
         raise Refused;
      end if;
      Given := Amount;
      All_Of_It := From >= Amount;
      if not All_Of_It then
         Given := From;
      end if;
      From := From - Given;
   end Withdraw;

   Cash  : Integer := 0;
   Whole : Boolean := False;
begin
   Withdraw (Balance, 70, Cash, Whole);
   Put_Line ("took" & Integer'Image (Cash) & " " & Boolean'Image (Whole) & ", left" & Integer'Image (Balance));
   Withdraw (Balance, 50, Cash, Whole);
   Put_Line ("took" & Integer'Image (Cash) & " " & Boolean'Image (Whole) & ", left" & Integer'Image (Balance));
   begin
      Withdraw (Balance, -10, Cash, Whole);
   exception
      when Refused =>
         Put_Line ("refused: cash" & Integer'Image (Cash) & ", left" & Integer'Image (Balance));
   end;
   Put_Line ("withdrawals" & Integer'Image (Count));
end Withdrawals;
