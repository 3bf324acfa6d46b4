--  A pool whose Allocate refuses (RM 13.11): it raises an exception of the program where a quota is used up, before it asks the library. The
--  exception goes on from the allocator. No object was made by then: none lives, none is finalized, and no number is taken.
with Ada.Finalization;        use Ada.Finalization;
with Ada.Text_IO;             use Ada.Text_IO;
with Ada.Unchecked_Deallocation;
with System;
with System.Storage_Elements; use System.Storage_Elements;
with Block_Pools;             use Block_Pools;

procedure Refusing_Pool is
   type Quota_Pool is new Block_Pool with record
      Left : Integer := 2;
   end record;

   overriding procedure Allocate
     (Pool : in out Quota_Pool; Storage_Address : out System.Address; Size, Alignment : in Storage_Count);

   type Ticket is new Limited_Controlled with record
      Number : Integer := 0;
   end record;

   overriding procedure Finalize (X : in out Ticket);

   Over_Quota : exception;

   procedure Allocate
     (Pool : in out Quota_Pool; Storage_Address : out System.Address; Size, Alignment : in Storage_Count) is
   begin
      if Pool.Left = 0 then
         raise Over_Quota;
      end if;
      Allocate (Block_Pool (Pool), Storage_Address, Size, Alignment);
      Pool.Left := Pool.Left - 1;
   end Allocate;

   procedure Finalize (X : in out Ticket) is
   begin
      Put_Line ("   ticket" & Integer'Image (X.Number) & " is finalized");
   end Finalize;
begin
   declare
      Pool : Quota_Pool (Block_Size => 16, Block_Count => 8);

      type Link is access Ticket with Storage_Pool => Pool;

      procedure Free is new Ada.Unchecked_Deallocation (Ticket, Link);

      A : Link;

      procedure Sell (Number : in Integer) is
      begin
         A := new Ticket;
         A.Number := Number;
         Put_Line ("sold" & Integer'Image (Number));
         Free (A);
      exception
         when Over_Quota =>
            Put_Line ("no ticket" & Integer'Image (Number) & ", nothing was made: " & Boolean'Image (A = null));
      end Sell;
   begin
      for I in 1 .. 3 loop
         Sell (I);
      end loop;
      --  The quota counts what was sold, and not what is out: the blocks are all free again.
      Pool.Left := 1;
      Sell (4);
      A := new Ticket;
   end;
end Refusing_Pool;
