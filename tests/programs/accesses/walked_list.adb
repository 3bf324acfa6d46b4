--  A list is walked by its links, in a loop and by a procedure that calls itself: components behind several
--  dereferences (RM 4.1, 4.1.3).
with Ada.Text_IO; use Ada.Text_IO;

procedure Walked_List is
   type Node;
   type Link is access Node;

   type Node is record
      N    : Integer := 0;
      Next : Link := null;
   end record;

   First, Last : Link;

   procedure Show (L : Link) is
   begin
      if L /= null then
         Put (Integer'Image (L.N));
         Show (L.Next);
      end if;
   end Show;
begin
   First := new Node;
   Last := First;
   for I in 1 .. 4 loop
      Last.Next := new Node;
      Last := Last.Next;
      Last.N := Last.N + I * I;
   end loop;
   Last := First;
   while Last /= null loop
      Put (Integer'Image (Last.N));
      Last := Last.Next;
   end loop;
   New_Line;
   Show (First.Next.Next);
   New_Line;
end Walked_List;
