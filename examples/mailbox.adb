--  A mailbox whose messages lie in a pool of three blocks (RM 13.11). A message that comes while all blocks are out is refused by
--  Storage_Error; the block of one that was read is taken again. What is left in the end is finalized with its collection, before the
--  pool: the access type is declared behind it.
with Ada.Finalization; use Ada.Finalization;
with Ada.Text_IO;      use Ada.Text_IO;
with Ada.Unchecked_Deallocation;
with Block_Pools;      use Block_Pools;

procedure Mailbox is
   --  A message takes 24 storage units: eight for its tag, and eight for each component.
   Blocks : Block_Pool (Block_Size => 24, Block_Count => 3);

   type Message;
   type Link is access Message with Storage_Pool => Blocks;
   type Message is new Limited_Controlled with record
      Number : Integer := 0;
      Next   : Link;
   end record;

   overriding procedure Finalize (X : in out Message);

   procedure Free is new Ada.Unchecked_Deallocation (Message, Link);

   First, Last : Link;

   procedure Finalize (X : in out Message) is
   begin
      Put_Line ("   message" & Integer'Image (X.Number) & " goes");
   end Finalize;

   procedure Send (Number : Integer) is
      Sent : Link;
   begin
      Sent := new Message;
      Sent.Number := Number;
      if First = null then
         First := Sent;
      else
         Last.Next := Sent;
      end if;
      Last := Sent;
      Put_Line ("sent" & Integer'Image (Number));
   exception
      when Storage_Error =>
         Put_Line ("no block for" & Integer'Image (Number));
   end Send;

   procedure Receive is
      Received : Link := First;
   begin
      First := Received.Next;
      Put_Line ("read" & Integer'Image (Received.Number));
      Free (Received);
   end Receive;
begin
   for I in 1 .. 4 loop
      Send (I);
   end loop;
   Receive;
   Send (4);
   Receive;
end Mailbox;
